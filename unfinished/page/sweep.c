/* sweep SEED ROUNDS A.so B.so: pages of ids in several orders on columns whole and damaged: both archives must give the same lists and words */
#include "peer.h"
#include <dlfcn.h>
#include <stdio.h>
#include <stdlib.h>
#include <string.h>
static uint64_t st;static uint64_t rnd(void){st+=0x9e3779b97f4a7c15u;uint64_t x=st;x=(x^x>>30)*0xbf58476d1ce4e5b9u;x=(x^x>>27)*0x94d049bb133111ebu;return x^x>>31;}
static uint32_t below(uint32_t n){return (uint32_t)(rnd()>>33)%n;}
static int by(const void*a,const void*b){uint32_t x=*(uint32_t*)a,y=*(uint32_t*)b;return (x>y)-(x<y);}
typedef uint64_t(*pagef)(const uint8_t*,size_t,const uint32_t*,size_t,uint64_t*,int64_t*,uint8_t*);
typedef signalfern_reply(*writef)(const uint32_t*,size_t,const int64_t*,size_t,uint32_t,uint8_t*,size_t);
static uint32_t ids[400000];static int64_t val[400000];static uint8_t col[1<<22];
enum{M=700};static uint32_t q[M];static uint64_t o1[M],o2[M];static int64_t v1[M],v2[M];static uint8_t k1[M],k2[M];
int main(int c,char**v){st=strtoull(v[1],0,10);int rounds=atoi(v[2]);void*a=dlopen(v[3],RTLD_NOW),*b=dlopen(v[4],RTLD_NOW);if(!a||!b)return 2;
 writef w=dlsym(a,"signalfern_write");pagef pa=dlsym(a,"yardstick_page"),pb=dlsym(b,"yardstick_page");uint64_t told=0,found=0,broken=0;
 static const uint32_t powers[]={0,7,8,9,10,12,15};
 for(int r=0;r<rounds;r++){size_t n=0;uint32_t blocks=1+below(6),bl=below(3);
  for(uint32_t k=0;k<blocks;k++,bl+=1+(below(3)?0:below(9))){int kind=below(8);
   if(kind<5){uint32_t m=1+below(kind<3?60:3000),at=below(50);for(uint32_t i=0;i<m&&at<65536;i++,at+=1+below(kind<3?900:40))ids[n++]=bl*65536+at;}
   else if(kind<7){uint32_t d=2+below(8);for(uint32_t at=0;at<65536;at++)if(below(d)==0)ids[n++]=bl*65536+at;}
   else if(n<200000)for(uint32_t at=0;at<65536;at++)ids[n++]=bl*65536+at;}
  int style=below(4);for(size_t i=0;i<n;i++)val[i]=style==0?7:style==1?-5+3*(int64_t)below(5):style==2?(int64_t)below(1000000)-1000:(int64_t)rnd();
  size_t len=w(ids,n,val,n,powers[below(7)],col,sizeof col).number;if(len>sizeof col)continue;
  for(int state=0;state<6;state++){
   if(state){int hits=1+below(6);for(int h=0;h<hits;h++){size_t at=below(4)?40+below((uint32_t)(len>80?len-80:1)):below(40);if(state>3&&below(2)&&len>200)at=20+below(180);if(at<len){if(below(2))col[at]^=1u<<below(8);else col[at]=(uint8_t)rnd();}}}
   for(int p=0;p<12;p++){size_t m=below(4)?M:below(M);int mode=below(6);uint32_t base=n?ids[below((uint32_t)n)]:0;
    for(size_t i=0;i<m;i++)switch(mode){case 0:q[i]=n?ids[below((uint32_t)n)]:5;break;case 1:q[i]=below(10*65536);break;case 2:q[i]=n?ids[(base%n+i)%n]:5;break;
     case 3:q[i]=base+(uint32_t)i*(1+p);break;case 4:q[i]=below(3)?(base&0xffff0000u)+below(65536):n?ids[below((uint32_t)n)]:1;break;default:q[i]=2147352000u+below(1200);}
    int sort=below(4);if(sort<2)qsort(q,m,4,by);if(sort==1)for(int s=0;s<5&&m>1;s++){size_t x=below((uint32_t)m),y=below((uint32_t)m);uint32_t t=q[x];q[x]=q[y];q[y]=t;}
    memset(o1,9,sizeof o1);memset(o2,9,sizeof o2);memset(v1,9,sizeof v1);memset(v2,9,sizeof v2);memset(k1,9,sizeof k1);memset(k2,9,sizeof k2);
    uint64_t x=pa(col,len,q,m,o1,v1,k1),y=pb(col,len,q,m,o2,v2,k2);told+=m;for(size_t i=0;i<m;i++){found+=k1[i]==0;broken+=k1[i]==15;}
    if(x!=y||memcmp(o1,o2,sizeof o1)||memcmp(v1,v2,sizeof v1)||memcmp(k1,k2,sizeof k1)){printf("differ: round %d state %d page %d mode %d sort %d words %llu %llu\n",r,state,p,mode,sort,(unsigned long long)x,(unsigned long long)y);return 1;}}}}
 printf("%llu answers equal, %llu found, %llu broken\n",(unsigned long long)told,(unsigned long long)found,(unsigned long long)broken);return 0;}
